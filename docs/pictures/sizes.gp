load "style.gp"
set output "sizes.svg"
set logscale x
set xtics ("100" 100, "1,000" 1000, "10,000" 10000, "100,000" 100000, "1,000,000" 1000000)
set rmargin 6
set yrange [0:*]
set xlabel "rows in the database"
set ylabel "microseconds of one processor a request"
plot "sizes.dat" using 1:2 with linespoints lw 2 pt 7 lc rgb "#3060b0" title "batches of 50", \
     "" using 1:3 with linespoints lw 2 pt 5 lc rgb "#b03030" title "batches of 1,000"
