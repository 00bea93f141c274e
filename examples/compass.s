# compass.s - an arrow to the teammate who was asked for.
#
# The display shows an arrow of 8 by 8 dots in one of eight directions, and in
# the text row `GO `, the direction's name and the bearing in degrees.
#
# The radio part sends the bearing as decimal digits and a line feed. The
# routine finds its sector of 45 degrees and takes the arrow and the name out
# of tables. For a bearing of 360 or more, or without a digit, the display
# shows no arrow, a dash for the name, and no degrees.
#
# The frame holds one byte a dot, 1 for a bright one, from the top left corner.

.globl draw_compass

.text
draw_compass:
        push ra
        push s0
        push s1
        read line               # at most 256 bytes; a0 is how many came
        jal ra, read_bearing    # a0 is the bearing, or -1
        la t0, last
        sw a0, 0(t0)
        jal ra, sector_of
        addi s0, a0, 0          # s0 is the sector, 8 for none

        slli s1, s0, 2          # four bytes a pointer
        la t0, pictures
        add t0, t0, s1
        lw a0, 0(t0)
        jal ra, draw_picture

        la t0, labels
        add t0, t0, s1
        lw a0, 0(t0)
        jal ra, show_label

        # What follows the name depends on the sector: a table of routines.
        la t0, tails
        add t0, t0, s1
        lw t0, 0(t0)
        jalr ra, t0, 0
        pop s1
        pop s0
        pop ra
        jalr x0, ra, 0

# read_bearing - the digits at the start of the line, a0 bytes long. The
# result is -1 without a digit or from 360 on.
read_bearing:
        la t0, line
        add t1, t0, a0          # behind the last byte
        li a0, 0
        addi t5, t0, 0
bearing_digit:
        bgeu t0, t1, bearing_end
        lbu t2, 0(t0)
        addi t2, t2, -48
        sltiu t3, t2, 10
        beq t3, x0, bearing_end
        li t4, 10
        mul a0, a0, t4
        add a0, a0, t2
        la t4, limit
        lhu t4, 0(t4)
        bgeu a0, t4, bearing_bad
        addi t0, t0, 1
        jal x0, bearing_digit
bearing_end:
        bne t0, t5, bearing_good
bearing_bad:
        li a0, -1
bearing_good:
        jalr x0, ra, 0

# sector_of - bearing a0 to its sector 0 to 7, clockwise from north; 8 for -1.
# The sectors' first bearings stand in a table because they lie at halves.
sector_of:
        blt a0, x0, sector_none
        la t0, starts
        li t1, 0
sector_next:
        lhu t2, 0(t0)
        bltu a0, t2, sector_found
        addi t0, t0, 2
        addi t1, t1, 1
        jal x0, sector_next     # the last start is beyond every bearing
sector_found:
        andi a0, t1, 7          # the ninth piece is north again
        jalr x0, ra, 0
sector_none:
        li a0, 8
        jalr x0, ra, 0

# draw_picture - eight bytes at a0, a row each, top first; a bit is a dot.
draw_picture:
        la t0, frame
        li t1, 8
picture_row:
        lbu t2, 0(a0)
        li t3, 8
picture_dot:
        srli t4, t2, 7          # the leftmost dot is the highest bit
        sb t4, 0(t0)
        slli t2, t2, 1
        andi t2, t2, 255
        addi t0, t0, 1
        addi t3, t3, -1
        bne t3, x0, picture_dot
        addi a0, a0, 1
        addi t1, t1, -1
        bne t1, x0, picture_row
        jalr x0, ra, 0

# show_label - copy the name at a0 into the caption and send it.
show_label:
        la t0, caption_name
        li t1, 4
label_byte:
        lbu t2, 0(a0)
        sb t2, 0(t0)
        addi a0, a0, 1
        addi t0, t0, 1
        addi t1, t1, -1
        bne t1, x0, label_byte
        print_str caption
        jalr x0, ra, 0

tail_degrees:                   # the number too, except where there is none
        la t0, last
        lw t1, 0(t0)
        print t1
tail_none:
        jalr x0, ra, 0

.data
limit:  .half 360
starts: .half 23, 68, 113, 158, 203, 248, 293, 338, 0xFFFF
        .align 8
# A picture is one double word; its lowest byte is the top row.
north:      .dword 0x181818185A3C1800
north_east: .dword 0x406030190D070F00
east:       .dword 0x00080C7E7E0C0800
south_east: .dword 0x000F070D19306040
south:      .dword 0x00183C5A18181818
south_west: .dword 0x00F0E0B0980C0602
west:       .dword 0x0010307E7E301000
north_west: .dword 0x02060C98B0E0F000
nothing:    .dword 0
pictures:   .word north, north_east, east, south_east, south
            .word south_west, west, north_west, nothing
labels:     .word n_n, n_ne, n_e, n_se, n_s, n_sw, n_w, n_nw, n_none
tails:      .word tail_degrees, tail_degrees, tail_degrees, tail_degrees
            .word tail_degrees, tail_degrees, tail_degrees, tail_degrees
            .word tail_none
n_n:    .asciz "N  "
n_ne:   .asciz "NE "
n_e:    .asciz "E  "
n_se:   .asciz "SE "
n_s:    .asciz "S  "
n_sw:   .asciz "SW "
n_w:    .asciz "W  "
n_nw:   .asciz "NW "
n_none: .asciz "-  "
caption: .ascii "GO "           # runs on into the name
caption_name: .space 4

# The bss begins where the data ends, and .align in it counts from there: so
# the data is ended at a multiple of four for the words below.
        .align 4

.bss
last:   .space 4
frame:  .space 64               # one byte a dot
line:   .space 256
