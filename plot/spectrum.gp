# Lines of `curve` and of `tabulated` are: period in thousandths of a second, ln median, median in 10^-10 g, total sigma in
# millionths. PGA's line has no period and is drawn at 0.01 s. `period` and `median` are those of a marked period, in the same units,
# or 0 where none is marked.
set terminal pngcairo size 800,600 font "Sans,11"
set title request noenhanced
set xlabel "Period (s)"
set ylabel "Spectral acceleration (g), 5% damping"
set logscale xy
set xrange [0.008:12]
set format x "%g"
set format y "%g"
set grid xtics ytics mxtics mytics linetype 1 linewidth 0.8 linecolor rgb "#b8b8b8", linetype 1 linewidth 0.5 linecolor rgb "#e0e0e0"
set key below horizontal Left reverse samplen 3 height 1
g(y) = y * 1e-10
up(y, s) = g(y) * exp(s * 1e-6)
down(y, s) = g(y) * exp(-s * 1e-6)
seconds(t) = t * 1e-3
# A marked period has a line up to its words, which stand above the frame, where no curve crosses them; for a long one the frame leaves
# them room.
if (period > 0) {
    set logscale x2
    set x2range [0.008:12]
    if (period > 3000) { set rmargin 9 }
    set x2tics (sprintf("%.3f s: %.3g g", seconds(period), g(median)) seconds(period)) scale 0 textcolor rgb "#007040"
    set arrow from seconds(period), graph 0 to seconds(period), graph 1 nohead linewidth 1.5 linecolor rgb "#20a060"
    set label at seconds(period), g(median) point pointtype 7 pointsize 1.6 linecolor rgb "#007040" front
}
plot "curve" using (seconds($1)):(down($3, $4)):(up($3, $4)) with filledcurves linecolor rgb "#d8e4f0" notitle, \
     "curve" using (seconds($1)):(g($3)) with lines linewidth 2 linecolor rgb "#103050" title "median", \
     "curve" using (seconds($1)):(up($3, $4)) with lines dashtype 2 linewidth 1.5 linecolor rgb "#3070b0" \
         title "median ± one total sigma", \
     "curve" using (seconds($1)):(down($3, $4)) with lines dashtype 2 linewidth 1.5 linecolor rgb "#3070b0" notitle, \
     "tabulated" using (seconds($1)):(g($3)) with points pointtype 7 pointsize 0.8 linecolor rgb "#103050" title "tabulated periods", \
     "pga" using (0.01):(g($3)) with points pointtype 12 pointsize 2 linewidth 2 linecolor rgb "#c03020" title "PGA"
