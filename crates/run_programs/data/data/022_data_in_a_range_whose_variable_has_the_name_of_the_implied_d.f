      INTEGER A(3)
      DO 10 I=1,3
      DATA (A(I),I=1,3)/3,4,5/
   10 J=J+A(I)
      WRITE (6,20) J,I
   20 FORMAT (2I3)
      END
