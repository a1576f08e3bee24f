# Draws the growth table `data` as the picture `picture`.
set terminal pngcairo size 2400,720 font "DejaVu Sans,13"
set output picture
set datafile separator tab
set xlabel "bytes in one call; both axes logarithmic"
set ylabel "time per byte, over that at 32 KiB"
set logscale x 2
set logscale y 2
set xtics ("64 B" 2**6, "256 B" 2**8, "1 KiB" 2**10, "4 KiB" 2**12, "16 KiB" 2**14, \
           "64 KiB" 2**16, "256 KiB" 2**18, "1 MiB" 2**20)
set xrange [2**5.5:2**20.5]
set yrange [0.5:*]
set grid
set key top right Left reverse box width 1 height 0.5
set multiplot layout 1,3 title "Time per byte as the input grows"
# Sealing and opening lie close together: hollow marks around smaller filled ones keep both in sight.
set linetype 1 lw 2 pt 4 ps 2.2 lc rgb "#b2182b"
set linetype 2 lw 2 pt 7 ps 1.1 dt 2 lc rgb "#2166ac"
set linetype 3 lw 2 pt 9 ps 1.4 lc rgb "#1b7837"
set linetype 4 lw 2 pt 13 ps 1.4 dt 4 lc rgb "#762a83"
at = 2 # the first of a cipher's columns: three, and a fourth for the one that has a tag
do for [cipher in "Trivium Enocoro"] {
    set title cipher
    plot data using 1:at + 2 with linespoints title "seal a pack (makes its cipher too)", \
         data using 1:at + 1 with linespoints title "open a pack (makes its cipher too)", \
         data using 1:at with linespoints title "encipher, on a cipher made before"
    at = at + 3
}
set title "TRIAD"
plot data using 1:at + 2 with linespoints title "seal a pack with a tag", \
     data using 1:at + 1 with linespoints title "open a pack with a tag", \
     data using 1:at with linespoints title "encipher, on a cipher made before", \
     data using 1:at + 3 with linespoints title "tag, from key and nonce on"
unset multiplot
