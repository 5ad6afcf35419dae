set terminal svg size 720,400 font "sans-serif,13" background "white"
set border 3
set tics nomirror
set grid ytics lc rgb "#dddddd"
set key left top
