      LOGICAL YES,NO
      PARAMETER (YES=.TRUE.,NO=.FALSE.)
      DO WHILE (NO)
      I=100
      END DO
      DO WHILE (.FALSE.)
      I=200
      END DO
      DO WHILE (YES)
      I=I+1
      IF (I.EQ.4) GO TO 10
      END DO
   10 WRITE (6,20) I
   20 FORMAT (I4)
      END
