# grid.s - the grid screen: where each teammate stands.
#
# The display shows dim lines, 8 squares across and 6 down, a square for each
# 100 metres, north at the top; in a square a bright block for the teammate who
# stands there; and in the text row how many are off the grid, if any are.
#
# The display is 64 dots wide and 48 high. Its frame holds one byte a dot, the
# dot's brightness, row by row from the north-west corner. A square is 8 by 8
# dots; its first dot row and its first dot column are line.
#
# Called from the radio's main loop. Keeps the s registers, as all here do.

.globl draw_grid

.text
draw_grid:
        push ra
        push s0
        push s1
        jal ra, clear_frame
        jal ra, draw_lines

        la s0, team             # s0 walks the team's table
        la s1, team_end
next_mate:
        bgeu s0, s1, all_drawn
        lbu a0, 0(s0)           # column, west to east
        lbu a1, 1(s0)           # row, north to south
        lbu a2, 2(s0)           # brightness
        jal ra, draw_mate
        addi s0, s0, 3          # three bytes a teammate
        jal x0, next_mate

all_drawn:
        la t1, off_grid
        lw s0, 0(t1)
        beq s0, x0, grid_done
        print_str off_text
        print s0
grid_done:
        pop s1
        pop s0
        pop ra
        jalr x0, ra, 0

# clear_frame - every dot dark, and nobody counted off the grid.
clear_frame:
        la t0, frame
        la t1, frame_end
clear_word:
        sw x0, 0(t0)            # four dots at a time
        addi t0, t0, 4
        bltu t0, t1, clear_word
        la t0, off_grid
        sw x0, 0(t0)
        jalr x0, ra, 0

# draw_lines - a dim dot wherever the row or the column is a multiple of 8.
draw_lines:
        la t0, frame
        li t1, 0                # t1 is the dot's row
        li t4, 48
        li t5, 64
        li t6, 60               # the lines' brightness
line_row:
        li t2, 0                # t2 is the dot's column
line_dot:
        andi t3, t1, 7
        beq t3, x0, line_on
        andi t3, t2, 7
        bne t3, x0, line_off
line_on:
        sb t6, 0(t0)
line_off:
        addi t0, t0, 1
        addi t2, t2, 1
        blt t2, t5, line_dot
        addi t1, t1, 1
        blt t1, t4, line_row
        jalr x0, ra, 0

# draw_mate - a block of 5 by 5 dots in the middle of a square.
# a0 column, a1 row, a2 brightness. Someone outside the grid is counted and
# not drawn: a wrong square is worse than none.
draw_mate:
        sltiu t0, a0, 8
        beq t0, x0, mate_outside
        sltiu t0, a1, 6
        beq t0, x0, mate_outside
        slli a1, a1, 3          # the square's first dot row
        addi a1, a1, 2          # two below the line
        slli a1, a1, 6          # 64 dots a row
        slli a0, a0, 3
        addi a0, a0, 2
        add a1, a1, a0
        la t0, frame
        add t0, t0, a1          # t0 is the block's first dot
        li t1, 5
mate_row:
        li t2, 5
mate_dot:
        sb a2, 0(t0)
        addi t0, t0, 1
        addi t2, t2, -1
        bne t2, x0, mate_dot
        addi t0, t0, 59         # on to the next row: 64 less the 5 drawn
        addi t1, t1, -1
        bne t1, x0, mate_row
        jalr x0, ra, 0
mate_outside:
        la t0, off_grid
        lw t1, 0(t0)
        addi t1, t1, 1
        sw t1, 0(t0)
        jalr x0, ra, 0

.data
# Column, row and brightness of each teammate. The radio part overwrites the
# first two when a position comes in; 255 means none has come yet.
team:   .byte 0, 0, 255         # the leader
        .byte 3, 1, 200
        .byte 7, 5, 200
        .byte 4, 2, 200
        .byte 255, 255, 200     # not heard from
team_end:
off_text: .asciz "off the grid "

# The bss begins where the data ends, and .align in it counts from there: so
# the data is ended at a multiple of four for the words below.
        .align 4

.bss
frame:  .space 3072             # 64 times 48
frame_end:
off_grid: .space 4
