      INTEGER A(40),B(-9:9)
      DO 10 I=1,12
   10 K=I+1-I*2+I-3+I*1-4+5-I+6*7-8+9-I+10*2-11+12-13+I-14+15-I+16-I/17
      DO 20 I=1,40
   20 A(I)=3*I-2*(I+1)
      DO 30 I=-9,9
   30 B(I)=I*4-I-5
      WRITE (6,9) A,B,K
      DO 40 I=40,1,-3
   40 A(I)=(I+7)*2-I
      DO 50 I=1,40
   50 A(I)=I*I-3*I+A(I)
      DO 60 I=1,11
   60 L=I+I-2*I+5
      DO 70 I=9,-9,-2
   70 B(I)=7-I-I*2+B(-I)
      J=3
      DO 80 I=1,20
   80 A(J)=2*I+A(J)-5
      DO 90 I=1,9
   90 M=5*3-I*2+4-J
      N=9
      DO 95 I=1,N
   95 N=I*2+3-N
      DO 97 I=0,30,5
   97 A(I+1)=100-I-I+3
      WRITE (6,9) A,B,K,L,M,N,I,J
    9 FORMAT (10I8)
      END
