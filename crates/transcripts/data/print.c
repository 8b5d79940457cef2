void q(long long v){if(v<-9)q(v/10);put_byte(48-v%10);}
void p(long long v){if(v<0){put_byte('-');q(v);}else q(-v);put_byte(' ');}
