      INTEGER A(40)
      DO 10 I=1,20
      K=MOD(K+I,997)
   10 K=K*2-I
      WRITE (6,9) K,I
      DO 20 I=1,30
      M=I
   20 M=M+I
      WRITE (6,9) M,I
    9 FORMAT (2I12)
      END
