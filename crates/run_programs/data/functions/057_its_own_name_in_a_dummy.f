      J(2.GE.(J))=1
      END
