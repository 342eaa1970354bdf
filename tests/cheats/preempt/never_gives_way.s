;@ hook preempt
; Nothing switches less than this.
mov64 r0, 0
exit
