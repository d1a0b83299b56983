      IMPLICIT INTEGER (A-Z)
      DO 20 I=1,5
      IF (2147483644+I.LT.I) THEN
      K=10
      ELSE
      K=20
      END IF
   20 CONTINUE
      END
