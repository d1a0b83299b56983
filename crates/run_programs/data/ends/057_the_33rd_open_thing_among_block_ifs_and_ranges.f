      DO I1=1,2
      IF (I1.EQ.1) THEN
      DO I2=1,2
      IF (I2.EQ.1) THEN
      DO I3=1,2
      IF (I3.EQ.1) THEN
      DO I4=1,2
      IF (I4.EQ.1) THEN
      DO I5=1,2
      IF (I5.EQ.1) THEN
      DO I6=1,2
      IF (I6.EQ.1) THEN
      DO I7=1,2
      IF (I7.EQ.1) THEN
      DO I8=1,2
      IF (I8.EQ.1) THEN
      DO I9=1,2
      IF (I9.EQ.1) THEN
      DO I10=1,2
      IF (I10.EQ.1) THEN
      DO I11=1,2
      IF (I11.EQ.1) THEN
      DO I12=1,2
      IF (I12.EQ.1) THEN
      DO I13=1,2
      IF (I13.EQ.1) THEN
      DO I14=1,2
      IF (I14.EQ.1) THEN
      DO I15=1,2
      IF (I15.EQ.1) THEN
      DO I16=1,2
      IF (I16.EQ.1) THEN
      DO J=1,2
      END
