{any(w0);up(r0,r0,w0,r0,w1,w1,r1);up(r1,r1,w1,r1,w0,w0,r0);down(r0,w1);down(r1,w0);down(r0,r0,w0,r0,w1,w1,r1);down(r1,r1,w1,r1,w0,w0,r0);up(r0,w1);up(r1,w0)}
