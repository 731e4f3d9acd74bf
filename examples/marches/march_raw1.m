{any(w0);any(w0,r0);any(r0);any(w1,r1);any(r1);any(w1,r1);any(r1);any(w0,r0);any(r0)}
