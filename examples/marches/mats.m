{any(w0);any(r0,w1);any(r1)}
