load "style.gp"
set output "rates.svg"
set style data histograms
set style histogram clustered gap 1
set style fill solid 0.9 border -1
set yrange [0:3.5]
set format y "%.1f"
set ylabel "times the plain engine's rate"
set key above horizontal
set xtics font ",12"
set bmargin 5
set arrow 1 from graph 0, first 1 to graph 1, first 1 nohead lc rgb "#c00000" dt 2
plot "rates.dat" using ($3/$2):xtic(1) lc rgb "#9dc3e6" title "1 worker", \
     "" using ($4/$2) lc rgb "#4f8fce" title "2 workers", \
     "" using ($5/$2) lc rgb "#1f4e79" title "4 workers"
