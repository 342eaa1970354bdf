;@ hook preempt
; The editor runs at once if everybody always gives way.
mov64 r0, 1
exit
