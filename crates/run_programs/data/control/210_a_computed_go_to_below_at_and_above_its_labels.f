      DO 50 I=-1,4
      GO TO (10,20,30),I
      K=9
      GO TO 40
   10 K=1
      GO TO 40
   20 K=2
      GO TO 40
   30 K=3
   40 WRITE (6,60) I,K
   50 CONTINUE
   60 FORMAT (2I3)
      END
