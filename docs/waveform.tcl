# For GTKWave: adds a waveform's three signals and goes to its first transaction, with marks at clock 33, where the frame starts (A),
# at 47, the turnaround of a read (B), and at 65, idle (C). At the repository's top: gtkwave -S docs/waveform.tcl wave.vcd
gtkwave::addSignalsFromList {mdio.level mdio.enable mdio.contention}
foreach {mark clock} {A 33 B 47 C 65} { gtkwave::setNamedMarker $mark $clock }
gtkwave::setZoomRangeTimes 1 73
