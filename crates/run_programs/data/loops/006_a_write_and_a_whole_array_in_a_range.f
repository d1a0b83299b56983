      INTEGER A(2)
      DO 10 I=1,3
      A(MOD(I,2)+1)=I*I
      WRITE (6,20) A,I
   10 CONTINUE
   20 FORMAT (3I3)
      END
