      DO I=1,2
      I=I+1
      END DO
      END
