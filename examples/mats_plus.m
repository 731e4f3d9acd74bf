{any(w0);up(r0,w1);down(r1,w0)}
