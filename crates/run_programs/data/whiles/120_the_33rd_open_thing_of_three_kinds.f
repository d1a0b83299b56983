      DO I0=1,2
      DO WHILE (K.LT.I0)
      IF (K.EQ.1) THEN
      DO I1=1,2
      DO WHILE (K.LT.I1)
      IF (K.EQ.1) THEN
      DO I2=1,2
      DO WHILE (K.LT.I2)
      IF (K.EQ.1) THEN
      DO I3=1,2
      DO WHILE (K.LT.I3)
      IF (K.EQ.1) THEN
      DO I4=1,2
      DO WHILE (K.LT.I4)
      IF (K.EQ.1) THEN
      DO I5=1,2
      DO WHILE (K.LT.I5)
      IF (K.EQ.1) THEN
      DO I6=1,2
      DO WHILE (K.LT.I6)
      IF (K.EQ.1) THEN
      DO I7=1,2
      DO WHILE (K.LT.I7)
      IF (K.EQ.1) THEN
      DO I8=1,2
      DO WHILE (K.LT.I8)
      IF (K.EQ.1) THEN
      DO I9=1,2
      DO WHILE (K.LT.I9)
      IF (K.EQ.1) THEN
      DO I10=1,2
      DO WHILE (K.LT.I10)
      IF (K.EQ.1) THEN
      END
