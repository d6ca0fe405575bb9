# Draws docs/growth.png from docs/growth.tsv, which bench/growth.py writes. Run at the top: gnuplot bench/growth.gp
# Columns: kind, edits, memory in MB, seconds to load, to print and for the canonical text, microseconds of an edit, a call, an action, an undoing.
set terminal pngcairo size 1200,400 font "Sans,10"
set output "docs/growth.png"
set datafile separator "\t"
set logscale xy
set format x "10^{%L}"
set xlabel "edits"
set grid ytics
set key top left
set multiplot layout 1,3
of(kind, column) = strcol(1) eq kind ? column : NaN
set title "Memory, megabytes"
plot "docs/growth.tsv" using (of("tree", $2)):3 with linespoints pt 7 title "all live", \
     "" using (of("history", $2)):3 with linespoints pt 5 title "nine tenths deleted"
set title "Seconds of the processor, all live"
plot "docs/growth.tsv" using (of("tree", $2)):4 with linespoints pt 7 title "load", \
     "" using (of("tree", $2)):5 with linespoints pt 5 title "print text", \
     "" using (of("tree", $2)):6 with linespoints pt 9 title "canonical text"
set title "Microseconds of the processor, all live"
unset logscale y
set yrange [0:*]
plot "docs/growth.tsv" using (of("tree", $2)):9 with linespoints pt 5 title "act", \
     "" using (of("tree", $2)):10 with linespoints pt 13 title "undo", \
     "" using (of("tree", $2)):7 with linespoints pt 7 title "apply an edit", \
     "" using (of("tree", $2)):8 with linespoints pt 9 title "a call without edits"
unset multiplot
