;@ hook place
; Answers a processor that no machine has.
mov64 r0, 64
exit
