;@ hook preempt
; The least that a policy can do: it answers what the rule would.

ldxw r0, [r1+48]        ; the own choice
exit
