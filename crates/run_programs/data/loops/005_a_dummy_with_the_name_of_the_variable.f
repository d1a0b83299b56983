      INTEGER SQ
      SQ(I)=I*I
      DO 10 I=1,3
   10 K=K+SQ(I+1)
      WRITE (6,20) K,I
   20 FORMAT (2I4)
      END
