# report.s - the report row: when a teammate reported, who, and that all is well.
#
# The text row shows a time, the teammate's number and a word: `12:40 #3;ok`. The
# radio part calls with the minutes since midnight in a0 and the number, 0 to 9,
# in a1. For any other number the row asks who it is.
#
# Between a string's quotes a colon, a comment mark and a semicolon are bytes like
# others, and a backslash begins an escape: `\n` ends the row, `\"` is a quote.

.globl show_report

.text
show_report:
        push ra
        li t0, 10
        bgeu a1, t0, no_report
        la t1, row
        addi t2, a1, 48         # the code of the digit 0
        sb t2, 7(t1)            # the number stands in column 8
        li t2, 60
        divu a1, a0, t2
        remu a0, a0, t2
        jal ra, two_digits      # the hours in columns 1 and 2
        addi t1, t1, 3
        addi a1, a0, 0
        jal ra, two_digits      # the minutes in columns 4 and 5
        print_str row
        jal x0, reported
no_report:
        print_str no_name
reported:
        pop ra
        jalr x0, ra, 0

# two_digits - the number a1, below 100, into the two bytes at t1; t0 is 10.
two_digits:
        divu t2, a1, t0
        addi t2, t2, 48
        sb t2, 0(t1)
        remu t2, a1, t0
        addi t2, t2, 48
        sb t2, 1(t1)
        jalr x0, ra, 0

.data
row:     .asciz "00:00 #0;ok\n"         # the digits are filled in
no_name: .asciz "who is \"#?\"; ask\n"
