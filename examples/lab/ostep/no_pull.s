;@ hook pull
; No task ever moves to another processor.

lddw r0, 4294967295     ; none
exit
