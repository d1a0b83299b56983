      INTEGER A(-2:2)
      DO 10 I=-2,2
   10 A(I)=I-2147483646
      WRITE (6,9) A
      DO 20 I=-2,2
   20 A(I)=I*1073741823
      WRITE (6,9) A
      DO 30 I=-2147483647,-2147483645
   30 K=I
      WRITE (6,9) I,K
    9 FORMAT (5I12)
      END
