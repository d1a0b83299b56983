      DO 40 I=1,12
      GO TO (10,20,10,20) I
      IF (I-5) 40,30,20
   10 K=K+1
      GO TO 40
   20 K=K+10
      GO TO 40
   30 STOP 'FIFTH'
   40 CONTINUE
      END
