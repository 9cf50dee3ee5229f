define(`AT', `(({!tb.clk && ($1)} % [1,1]) ; rise(tb.clk))')dnl
define(`NEXT', `(tb.clk ; !tb.clk? ; AT(`$1'))')dnl
define(`CYCLE', `(tb.clk ; !tb.clk ; rise(tb.clk))')dnl
# A request stays until its answer, which is seen at one of the three edges behind its first one.
each held  = AT(`tb.req && !tb.ack') |-> NEXT(`tb.req || tb.ack')
each quick = AT(`!tb.req') ; NEXT(`tb.req') |-> CYCLE? ; CYCLE? ; NEXT(`tb.ack')
