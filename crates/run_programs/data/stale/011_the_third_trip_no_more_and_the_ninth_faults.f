      INTEGER D
      DO 10 I=1,9
      IF (I.EQ.1) D=2
      IF (I.EQ.3) J=8/D
      IF (I.EQ.9) K=8/(D-2)
   10 CONTINUE
      END
