{any(w0);del;any(r0,w1);del;any(r1)}
