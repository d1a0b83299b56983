      DO 20 N=1,3
      IF (N.EQ.2) THEN
      PRINT 30,N,(I,I=1,N)
      ELSE
      IF (N.EQ.3) WRITE (6,30) N,(I,I=1,N)
      END IF
   20 CONTINUE
   30 FORMAT (9I2)
      END
