{any(w0);del;up(r0,w1);del;down(r1)}
