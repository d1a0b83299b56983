      DO WHILE (I.LT.9)
      I=I+1
      IF (MOD(I,3).EQ.0) THEN
      J=J+1
      ELSE IF (MOD(I,2).EQ.0) THEN
      K=K+1
      ELSE
      L=L+1
      END IF
      END DO
      WRITE (6,10) I,J,K,L
   10 FORMAT (4I4)
      END
