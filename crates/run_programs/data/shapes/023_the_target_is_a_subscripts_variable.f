      INTEGER A(5),E(5,5)
      DATA A/3,5,2,1,4/
      K=1
      DO 10 I=1,7
   10 K=A(K)
      WRITE (6,9) K,I
      J=1
      DO 20 I=1,5
   20 J=J+A(J)-A(J)
      WRITE (6,9) J,I
      DO 30 I=1,5
   30 E(I,2)=E(I,2)+I
      K=1
      DO 40 I=1,5
   40 K=E(K,2)
      WRITE (6,9) K,I
    9 FORMAT (2I3)
      END
