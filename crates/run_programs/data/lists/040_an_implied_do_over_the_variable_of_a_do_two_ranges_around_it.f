      DO 10 I=1,3
      DO 10 J=1,3
   10 WRITE (6,20) J,(J,(K,I=1,3),K=1,3)
   20 FORMAT (I3)
      END
