# names.s - the text screen: who is in the team, and in which direction.
#
# The display shows six rows of 16 characters. A row holds a teammate's name in
# columns 1 to 10 and the bearing, 000 to 359, in columns 13 to 15. The keys `u`
# and `d` move the list up and down by one name; rows behind its end are blank.
#
# Each row is ended by a line feed (10), the whole screen by a zero, so that it
# is sent as one string.

.globl show_names

.text
show_names:
        push ra
        push s0
        push s1
        push s2

        read_byte key
        jal ra, move_list
        jal ra, blank_screen

        la t0, first
        lw s0, 0(t0)            # s0 is the teammate's number
        li s1, 0                # s1 is the row on the screen
        la s2, screen           # s2 is where the row begins
name_row:
        la t0, count
        lw t0, 0(t0)
        bgeu s0, t0, names_done # the list is shorter than the screen
        addi a0, s0, 0
        addi a1, s2, 0
        jal ra, write_row
        addi s0, s0, 1
        addi s1, s1, 1
        addi s2, s2, 17         # 16 characters and the line feed
        li t0, 6
        bltu s1, t0, name_row

names_done:
        print_str screen
        jal ra, choose_wait
        pop s2
        pop s1
        pop s0
        pop ra
        jalr x0, ra, 0

# move_list - follow the key, but stay within the list.
move_list:
        la t0, key
        lbu t1, 0(t0)
        la t2, first
        lw t3, 0(t2)
        li t4, 'u'
        beq t1, t4, move_up
        li t4, 'd'
        bne t1, t4, move_done   # any other key leaves the list alone
        la t5, count
        lw t5, 0(t5)
        addi t3, t3, 1
        bgeu t3, t5, move_done
        sw t3, 0(t2)
        jalr x0, ra, 0
move_up:
        beq t3, x0, move_done
        addi t3, t3, -1
        sw t3, 0(t2)
move_done:
        jalr x0, ra, 0

# blank_screen - six rows of blanks with their line feeds, then the zero.
blank_screen:
        la t0, screen
        li t1, 6
        li t3, ' '
        li t4, '\n'
blank_row:
        li t2, 16
blank_cell:
        sb t3, 0(t0)
        addi t0, t0, 1
        addi t2, t2, -1
        bne t2, x0, blank_cell
        sb t4, 0(t0)
        addi t0, t0, 1
        addi t1, t1, -1
        bne t1, x0, blank_row
        sb x0, 0(t0)
        jalr x0, ra, 0

# write_row - teammate number a0 into the row that begins at a1.
write_row:
        push ra
        li t0, 12               # bytes of one entry
        mul t0, a0, t0
        la t1, members
        add t1, t1, t0
        lhu a0, 10(t1)          # the bearing stands after the name
        addi t2, a1, 0
        li t3, 10
copy_name:
        lbu t4, 0(t1)
        sb t4, 0(t2)
        addi t1, t1, 1
        addi t2, t2, 1
        addi t3, t3, -1
        bne t3, x0, copy_name
        addi a1, a1, 14         # the last digit's place, column 15
        jal ra, write_bearing
        pop ra
        jalr x0, ra, 0

# write_bearing - a0 as three digits, the last of them at a1.
write_bearing:
        li t0, 3
        li t1, 10
digit:
        remu t2, a0, t1
        divu a0, a0, t1
        addi t2, t2, 48         # the code of the digit 0
        sb t2, 0(a1)
        addi a1, a1, -1
        addi t0, t0, -1
        bne t0, x0, digit
        jalr x0, ra, 0

# choose_wait - how long to wait before our own position goes out, 200 to
# 1223 milliseconds. It is random so that two sets do not keep colliding.
choose_wait:
        random t1
        andi t1, t1, 1023
        addi t1, t1, 200
        la t2, wait
        sw t1, 0(t2)
        jalr x0, ra, 0

.data
# Twelve bytes a teammate: ten of name, padded with blanks, and the bearing.
members:
        .ascii "ANNA      "
        .half 47
        .ascii "BERTRAND  "
        .half 0
        .ascii "CHIARA    "
        .half 359
        .ascii "DAWIT     "
        .half 180
        .ascii "ELIN      "
        .half 92
        .ascii "FERRAN    "
        .half 271
        .ascii "GWEN      "
        .half 5
        .align 4
count:  .word 7                 # ends the data at a multiple of four, so that
                                # .align holds in the bss, which follows it
.bss
key:    .space 1
        .align 4
first:  .space 4
wait:   .space 4
screen: .space 103              # 6 rows of 17, and the zero
