C TURNS 23
      I=0
   10 I=I+1
      IF (I.EQ.2) THEN
      K=K+10
      ELSE IF (I.EQ.3) THEN
      K=K+100
      ELSE
      K=K+1
      END IF
      IF (I.LT.4) GO TO 10
      WRITE (6,20) I,K
   20 FORMAT (2I5)
      END
