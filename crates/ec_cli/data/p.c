int main(void){put_byte(72);put_byte(361);return 7;}
