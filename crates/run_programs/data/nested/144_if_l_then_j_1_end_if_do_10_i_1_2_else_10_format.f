      IF(L)THEN
      J=1
      END IF
      DO 10 I=1,2
      ELSE
10    FORMAT(I5)
      END
