load "style.gp"
set output "waits.svg"
set terminal svg size 720,720 font "sans-serif,13" background "white"
set key right bottom
set key at graph 0.98, 0.12
set multiplot layout 2,1
set xlabel "of a hundred accesses, how many go to the hot hundredth of the keys"
set ylabel "waits a request"
set logscale y
set yrange [0.005:500]
set ytics ("0" 0.007, "0.1" 0.1, "1" 1, "10" 10, "100" 100)
set xrange [-2:82]
shown(n) = n > 0 ? n : 0.007
set title "50 reads in a hundred, the others write"
plot "waits.dat" using 1:(shown($2)) with linespoints lw 2 pt 7 lc rgb "#b03030" title "plain", \
     "" using 1:(shown($3)) with linespoints lw 2 pt 5 lc rgb "#3060b0" title "reorder", \
     "" using 1:(shown($4)) with linespoints lw 2 pt 9 lc rgb "#308040" title "reorder with a late run"
set title "80 reads in a hundred, the others write"
plot "waits.dat" using 1:(shown($5)) with linespoints lw 2 pt 7 lc rgb "#b03030" title "plain", \
     "" using 1:(shown($6)) with linespoints lw 2 pt 5 lc rgb "#3060b0" title "reorder", \
     "" using 1:(shown($7)) with linespoints lw 2 pt 9 lc rgb "#308040" title "reorder with a late run"
unset multiplot
