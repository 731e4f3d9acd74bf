{any(w0);up(r0,w1,r1);up(r1,w0,r0);down(r0,w1,r1);down(r1,w0,r0);del;any(r0,w1);del;any(r1)}
