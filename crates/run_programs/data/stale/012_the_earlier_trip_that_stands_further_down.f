      INTEGER A(5),Z
      DO 10 I=1,9
      IF (I.EQ.6) J=1/Z
   10 IF (I.EQ.5) A(I+1)=I
      END
