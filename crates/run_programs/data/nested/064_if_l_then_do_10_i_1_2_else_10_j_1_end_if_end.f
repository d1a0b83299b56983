      IF(L)THEN
      DO 10 I=1,2
      ELSE
10    J=1
      END IF
      END
