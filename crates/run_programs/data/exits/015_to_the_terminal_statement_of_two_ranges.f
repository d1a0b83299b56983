      INTEGER A(5)
      DO 10 I=1,5
      DO 10 J=1,5
      IF (J.EQ.I) GO TO 10
      A(I)=A(I)+J
   10 CONTINUE
      WRITE (6,20) I,J,A
   20 FORMAT (7I3)
      END
