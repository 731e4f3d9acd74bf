{any(w0);up(r0,w1);up(r1,w0);down(r0,w1);down(r1,w0);any(r0)}
