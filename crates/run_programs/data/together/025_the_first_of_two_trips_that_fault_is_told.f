      INTEGER Z
      DO 10 I=1,8
      IF (I.EQ.3) J=1/Z
      IF (I.EQ.6) K=1/Z
   10 CONTINUE
      END
