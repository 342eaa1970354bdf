;@ hook place
; A constant: every task goes to processor 0, which moves nobody.
mov64 r0, 0
exit
