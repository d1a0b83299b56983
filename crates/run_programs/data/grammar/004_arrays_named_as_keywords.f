      INTEGER IF(3),FORMAT(2),DO
      I=2
      IF(I)=3
      FORMAT(I)=IF(2)+1
      DO=FORMAT(2)
      WRITE(6,10)IF(I),DO
   10 FORMAT(2I2)
      END
