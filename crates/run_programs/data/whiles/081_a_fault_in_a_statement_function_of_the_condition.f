      IN(K)=24/(K-4)
      I=1
      DO WHILE (IN(I).NE.0)
      WRITE (6,10) I
      I=I+1
      END DO
   10 FORMAT (I4)
      END
