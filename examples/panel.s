# panel.s - the status panel: how much charge the battery has.
#
# The display shows text, 32 columns by 12 rows. In its lower part stands the
# panel, 28 columns wide: an edge of equals signs, the title, a bar of 20 cells,
# a star for each twentieth of the charge and a dot for what is used up, and the
# edge again. The rest is blank.
#
# Every place is an equate computed from labels, from `.` and from other equates.
# A team that orders another size changes the numbers marked ORDER, and the
# frame's .space at the end, which takes a plain number only.
#
# The li lines with a name load addresses. Such an li takes two words, whatever
# the value is: so another size or another base changes words, and moves none.
# An equate above 2147483647 is refused by li: the routine needs a base below
# that.

.globl draw_panel

.equ COLS, 32                   # ORDER: characters in a row
.equ ABOVE 224                  # ORDER: cells above the panel, 7 rows of them
.set MARGIN, 2                  # ORDER: free columns on either side
.set BAR, 20                    # ORDER: cells of the bar

# These may come in any order; what they use may stand further down.
FOOT_END = FOOT_AT + WIDTH
FOOT_AT = BAR_ROW + COLS
BAR_END = BAR_AT + BAR
BAR_AT = BAR_ROW + WIDTH - BAR - 1      # as far from the edge as the title
BAR_ROW = TITLE_ROW + COLS
TITLE_AT = TITLE_ROW + 1
TITLE_ROW = EDGE_AT + COLS
EDGE_END = EDGE_AT + WIDTH
EDGE_AT = FRAME_AT + ABOVE + LEFT       # the panel's first cell
WIDTH = RIGHT - LEFT
RIGHT = COLS - MARGIN
LEFT = MARGIN
FRAME_AT = frame
FRAME_END = frame + FRAME_LEN
.equ TITLE_END, title + TITLE_LEN

.text
# draw_panel - a0 is the charge in percent; more than 100 counts as 100.
draw_panel:
        push ra
        push s0
        addi s0, a0, 0
        li t0, 100
        bgeu t0, s0, charge_good
        li s0, 100
charge_good:
        li a0, FRAME_AT         # blanks everywhere
        li a1, FRAME_END
        li a2, ' '
        jal ra, fill
        sb x0, 0(a0)            # and a zero behind the last cell

        li a0, EDGE_AT          # the edge above the title
        li a1, EDGE_END
        li a2, 61               # the equals sign by its number: a line with
        jal ra, fill            # that sign in it is always an equate

        la t0, title
        li t1, TITLE_END
        li a0, TITLE_AT
        jal ra, copy_text

        # The bar: stars for the charge, dots for the rest.
        li a0, BAR_AT
        li a1, BAR_END
        sub t0, a1, a0          # how many cells it has
        mul t0, t0, s0
        li t1, 100
        divu t0, t0, t1         # how many of them are stars
        add a1, a0, t0
        li a2, '*'
        jal ra, fill            # leaves a0 behind the last star
        li a1, BAR_END
        li a2, '.'
        jal ra, fill

        li a0, FOOT_AT          # the edge below
        li a1, FOOT_END
        li a2, 61
        jal ra, fill

        print_str frame
        pop s0
        pop ra
        jalr x0, ra, 0
panel_code = . - draw_panel     # bytes of code, for the order's label

# fill - the cells from a0 up to a1 get a2; a0 ends at a1.
fill:
        bgeu a0, a1, fill_done
        sb a2, 0(a0)
        addi a0, a0, 1
        jal x0, fill
fill_done:
        jalr x0, ra, 0

# copy_text - the bytes from t0 up to t1 go to a0 and on.
copy_text:
        bgeu t0, t1, copy_done
        lbu t2, 0(t0)
        sb t2, 0(a0)
        addi t0, t0, 1
        addi a0, a0, 1
        jal x0, copy_text
copy_done:
        jalr x0, ra, 0

.data
title:  .ascii "BATTERY CHARGE"
TITLE_LEN = . - title
sizes:  .half 32, 12            # columns and rows, as the display is wired
        .align 4
parts:  .word draw_panel, title, frame  # for the repairer's reader

.bss
frame:  .space 384              # 32 columns times 12 rows
frame_end:
FRAME_LEN = frame_end - frame
        .space 4                # room for the zero
